//! Why no text gives a table value because of its accesses.

use super::reasons::{
    all_of_levels, all_of_range, all_past_end, mark_past, of_levels, of_places_past_end, of_range,
};
use super::Names;
use crate::model::value::{
    access_field_name, Value, ACCESS_CEILING, ACCESS_LENGTH, ACCESS_PLACE, ACCESS_TASK,
    ACCESS_USEFUL,
};
use crate::model::ACCESSES_MOST;

const TIME_MOST: u64 = 250_000_000;

const COUNT: &str = "accesses";
const MARKS: &str = "an access's UCB";
const ONE_BELOW: &str = "a ceiling one below its task";
const FAR_BELOW: &str = "a ceiling further below its task";

pub fn all() -> Names {
    let once = [ONE_BELOW, FAR_BELOW];
    let mut reasons: Names = once.into_iter().map(str::to_string).collect();
    reasons.extend(all_of_range(COUNT, 0));
    for (field, least) in [(ACCESS_TASK, 0), (ACCESS_CEILING, 0), (ACCESS_LENGTH, 1)] {
        reasons.extend(all_of_range(&access_field_name(field), least));
    }
    for word in 0..4 {
        reasons.extend(["first", "further"].map(|how| mark_past(how, MARKS, word)));
    }
    reasons.extend(all_of_levels(MARKS));
    let fields = 0..ACCESS_PLACE;
    reasons.extend(fields.flat_map(|field| all_past_end(&access_field_name(field))));
    reasons
}

/// Everything that is wrong with the accesses of a value whose number of tasks is good.
pub fn reasons(value: &Value) -> Names {
    if let Some(reason) = of_range(COUNT, value.access_count(), 0, ACCESSES_MOST as u64) {
        return Names::from([reason]);
    }
    let mut reasons = Names::new();
    reasons.extend(value.accesses().flat_map(|access| of_access(access, value)));
    let taken = value.accesses_taken();
    let past_end = of_places_past_end(value.access_places(), taken, access_field_name);
    reasons.extend(past_end);
    reasons
}

fn of_access(access: &[u64], value: &Value) -> Names {
    let mut reasons = Names::new();
    let last_task = value.count() - 1;
    for field in [ACCESS_TASK, ACCESS_CEILING] {
        let name = access_field_name(field);
        reasons.extend(of_range(&name, access[field], 0, last_task));
    }
    if reasons.is_empty() {
        let below = access[ACCESS_CEILING].saturating_sub(access[ACCESS_TASK]);
        reasons.extend(match below {
            0 => None,
            1 => Some(ONE_BELOW.to_string()),
            _ => Some(FAR_BELOW.to_string()),
        });
    }
    let (name, length) = (access_field_name(ACCESS_LENGTH), access[ACCESS_LENGTH]);
    reasons.extend(of_range(&name, length, 1, TIME_MOST));
    reasons.extend(of_levels(MARKS, &access[ACCESS_USEFUL], value));
    reasons
}
