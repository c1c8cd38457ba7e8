//! The checker: five questions on lent bytes.

pub mod bits;
pub mod instance;
pub mod instance_rules;
pub mod members;
pub mod model;
pub mod model_rules;
pub mod naming;
pub mod path_rules;
pub mod paths;
pub mod walk;

/// Rule number and place of the faulty record.
#[derive(Debug, Clone, Copy, PartialEq, Eq)]
pub struct Refusal {
    pub rule: u32,
    pub place: u32,
}

/// What a call answers.
#[derive(Debug, Clone, Copy, PartialEq, Eq)]
pub enum Answer {
    ModelAccepted { segments: u32 },
    InstanceAccepted,
    MembersAccepted,
    Walked { results: u32, opened: u32 },
    Refused { rule: u32, place: u32 },
}

impl Answer {
    /// The answer in the 64 bits of the C interface.
    pub fn packed(self) -> u64 {
        match self {
            Answer::ModelAccepted { segments } => u64::from(segments),
            Answer::InstanceAccepted | Answer::MembersAccepted => 0,
            Answer::Walked { results, opened } => u64::from(results) * 65536 + u64::from(opened),
            Answer::Refused { rule, place } => (u64::from(rule) << 32) + u64::from(place),
        }
    }
}

impl From<Refusal> for Answer {
    fn from(refusal: Refusal) -> Answer {
        Answer::Refused {
            rule: refusal.rule,
            place: refusal.place,
        }
    }
}

/// Rules 1 to 19. On acceptance two bytes a segment are written.
pub fn check_model(image: &[u8], resolution: &mut [u8]) -> Answer {
    match model_rules::check(image, Some(resolution.len())) {
        Err(refusal) => refusal.into(),
        Ok(known) => {
            known.write_resolution(resolution);
            Answer::ModelAccepted {
                segments: known.model.segments.len() as u32,
            }
        }
    }
}

/// The model's rules without 2, then 20 to 26.
pub fn check_instance(model: &[u8], instance: &[u8]) -> Answer {
    match check_both(model, instance) {
        Err(refusal) => refusal.into(),
        Ok(_) => Answer::InstanceAccepted,
    }
}

/// The instance check, then 27 to 29; on acceptance the results are written.
pub fn walk(
    model: &[u8],
    instance: &[u8],
    place: u32,
    path: u32,
    node: u32,
    results: &mut [u8],
) -> Answer {
    let walked = check_both(model, instance)
        .and_then(|(known, nodes)| walk::walk(&known, &nodes, place, path, node, results.len()));
    match walked {
        Err(refusal) => refusal.into(),
        Ok(walked) => {
            debug_assert!(walked.to_its_end);
            walk::write_items(&walked.items, results);
            Answer::Walked {
                results: walked.items.len() as u32,
                opened: walked.opened,
            }
        }
    }
}

/// The model's rules without 2, then 30 and 31.
pub fn check_members(model: &[u8], members: &[u8]) -> Answer {
    let checked = model_rules::check(model, None).and_then(|known| members::check(&known, members));
    match checked {
        Err(refusal) => refusal.into(),
        Ok(()) => Answer::MembersAccepted,
    }
}

/// The name of the record at a place, as a part of the image.
pub fn name_of_record(image: &[u8], place: u32) -> &[u8] {
    naming::name_of_record(image, place)
}

/// Both images checked, for the instance check and the walk.
fn check_both<'a>(
    model: &'a [u8],
    instance: &[u8],
) -> Result<(model_rules::Known<'a>, instance::Instance), Refusal> {
    let known = model_rules::check(model, None)?;
    let nodes = instance_rules::check(&known, instance)?;
    Ok((known, nodes))
}
