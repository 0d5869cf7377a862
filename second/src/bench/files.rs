//! The files of a plan as JSON, a record in a line.

use super::plan::{Kind, Plan, Task};

pub(super) const FILE_TYPE: &str = "IPMDAR_SCHEDULE_PERFORMANCE_DATASET/1.0";

pub(super) const METADATA: &str = r#"{"SecurityMarking":"U","ReportingPeriodEndDate":"2026-06-28",
"ContractorName":"Harbour Builders","ContractorIDCodeTypeID":"CAGE","ContractorIDCode":"1ABC2",
"ContractName":"Harbour basin","ContractNumber":"HB-2026-7","EVMSAccepted":true,
"EVMSAcceptanceDate":"2025-05-05"}"#;

pub(super) const SOFTWARE: &str =
    r#"{"Data_SoftwareName":"Planner","Data_SoftwareVersion":"8.2","Export_SoftwareName":"Out"}"#;

pub(super) const PROJECT: &str = r#"{"StatusDate":"2026-06-28","CurrentStartDate":"2026-01-01",
"CurrentFinishDate":"2036-12-28","DurationUnitsID":"DAYS"}"#;

pub(super) const PROJECT_FIELDS: &str =
    r#"[{"CustomFieldID":"FIELD_01","Name":"Site"},{"CustomFieldID":"FIELD_02","Name":"Lot"}]"#;

pub(super) const PROJECT_VALUES: &str =
    r#"[{"CustomFieldID":"FIELD_01","Value":"North"},{"CustomFieldID":"FIELD_02","Value":"7"}]"#;

pub(super) const TASK_FIELDS: &str =
    r#"[{"CustomFieldID":"FIELD_03","Name":"Crew"},{"CustomFieldID":"FIELD_04","Name":"Permit"}]"#;

pub(super) const RESOURCE_FIELDS: &str = r#"[{"CustomFieldID":"FIELD_05","Name":"Depot"}]"#;

/// The records as a JSON array.
pub(super) fn array(records: impl IntoIterator<Item = String>) -> String {
    let records: Vec<String> = records.into_iter().collect();
    format!("[\n{}\n]\n", records.join(",\n"))
}

fn calendar_id(index: usize) -> String {
    format!("CAL-{index:02}")
}

fn resource_id(index: usize) -> String {
    format!("RES-{index:03}")
}

/// Months of 28 days, so that every day is a date.
fn date(day: usize) -> String {
    format!("{}-{:02}-{:02}", 2026 + day / 336, day / 28 % 12 + 1, day % 28 + 1)
}

pub(super) fn calendars(plan: &Plan) -> String {
    array((0..plan.calendars).map(|index| {
        format!(r#"{{"ID":"{}","Name":"Shift pattern {index}"}}"#, calendar_id(index))
    }))
}

pub(super) fn workshifts(plan: &Plan) -> String {
    array((0..plan.calendars).map(|index| {
        format!(
            r#"{{"CalendarID":"{}","Ordinal":1,"SundayWorkHours":0,"MondayWorkHours":8,"TuesdayWorkHours":8,"WednesdayWorkHours":8,"ThursdayWorkHours":8,"FridayWorkHours":6.5,"SaturdayWorkHours":0}}"#,
            calendar_id(index)
        )
    }))
}

/// Eight holidays in each calendar.
pub(super) fn exceptions(plan: &Plan) -> String {
    array((0..8 * plan.calendars).map(|index| {
        let (calendar, day) = (calendar_id(index / 8), date(40 * (index % 8)));
        format!(r#"{{"CalendarID":"{calendar}","ExceptionDate":"{day}","WorkHours":0}}"#)
    }))
}

pub(super) fn tasks(plan: &Plan) -> String {
    array(plan.tasks.iter().map(|task| {
        let Task { id, name, .. } = task;
        let rest = match task.kind {
            Kind::Summary => r#""SUMMARY""#.to_string(),
            Kind::Milestone => r#""MILESTONE","TaskSubtypeID":"CONTRACTUAL_MILESTONE""#.to_string(),
            Kind::Activity => format!(
                r#""ACTIVITY","TaskPlanningLevelID":"WORK_PACKAGE","WBSElementID":"1.{}","ControlAccountID":"CA-{:02}","EarnedValueTechniqueID":"PERCENT_COMPLETE""#,
                task.parent.unwrap_or(0),
                task.calendar
            ),
        };
        format!(r#"{{"ID":"{id}","Name":"{name}","TaskTypeID":{rest}}}"#)
    }))
}

pub(super) fn schedules(plan: &mut Plan) -> String {
    let Plan { tasks, random, .. } = plan;
    array(tasks.iter().map(|task| {
        let done = random.below(101);
        schedule(task, random.below(15), done)
    }))
}

fn schedule(task: &Task, float: usize, done: usize) -> String {
    let Task { id, start, days, .. } = task;
    let (first, last) = (date(*start), date(start + days));
    let (late_first, late_last) = (date(start + float), date(start + days + float));
    let calendar = calendar_id(task.calendar);
    let critical = float == 0;
    // Tenths of days, as exports have them.
    let (left, left_tenth) = (days * (100 - done) / 100, days * (100 - done) / 10 % 10);
    format!(
        r#"{{"TaskID":"{id}","CalendarID":"{calendar}","CurrentDuration":{days},"CurrentStartDate":"{first}","CurrentFinishDate":"{last}","EarlyStartDate":"{first}","EarlyFinishDate":"{last}","LateStartDate":"{late_first}","LateFinishDate":"{late_last}","FreeFloatDuration":0,"TotalFloatDuration":{float},"OnCriticalPath":{critical},"BaselineDuration":{days},"BaselineStartDate":"{first}","BaselineFinishDate":"{last}","StartVarianceDuration":0,"FinishVarianceDuration":-0.5,"CalculatedPercentComplete":{done},"RemainingDuration":{left}.{left_tenth}}}"#
    )
}

/// A crew for each leaf, a permit for every fifth.
pub(super) fn task_values(plan: &mut Plan) -> String {
    let mut records = Vec::new();
    for leaf in plan.leaves() {
        let id = &plan.tasks[leaf].id;
        let crew = plan.random.pick(&["Blue", "Red", "Night"]);
        records.push(format!(r#"{{"TaskID":"{id}","CustomFieldID":"FIELD_03","Value":"{crew}"}}"#));
        if leaf % 5 == 0 {
            records.push(format!(
                r#"{{"TaskID":"{id}","CustomFieldID":"FIELD_04","Value":"P {leaf}"}}"#
            ));
        }
    }
    array(records)
}

/// Every fifteenth leaf waits for a day.
pub(super) fn constraints(plan: &Plan) -> String {
    array(plan.leaves().into_iter().step_by(15).map(|leaf| {
        let Task { id, start, .. } = &plan.tasks[leaf];
        let day = date(*start);
        format!(
            r#"{{"TaskID":"{id}","ConstraintTypeID":"START_NO_EARLIER_THAN","ConstraintDate":"{day}"}}"#
        )
    }))
}

/// Each leaf follows the one before; every third also starts after some
/// earlier one, with a lag.
pub(super) fn links(plan: &mut Plan) -> String {
    let leaves = plan.leaves();
    let mut records = Vec::new();
    for at in 1..leaves.len() {
        let id = |at: usize| &plan.tasks[leaves[at]].id;
        records.push(link(id(at - 1), id(at), r#""FINISH_TO_START""#));
        if at % 3 == 0 {
            let earlier = plan.random.below(at);
            let calendar = calendar_id(plan.tasks[leaves[at]].calendar);
            let rest = format!(
                r#""START_TO_START","LagDuration":{},"LagCalendarID":"{calendar}""#,
                at % 9
            );
            records.push(link(id(earlier), id(at), &rest));
        }
    }
    array(records)
}

/// `rest` is the link's type and what follows it.
pub(super) fn link(from: &str, to: &str, rest: &str) -> String {
    format!(
        r#"{{"PredecessorTaskID":"{from}","SuccessorTaskID":"{to}","RelationshipTypeID":{rest}}}"#
    )
}

pub(super) fn outline(plan: &Plan) -> String {
    array(plan.tasks.iter().map(|task| {
        let parent = task.parent.map(|parent| plan.tasks[parent].id.as_str());
        outline_record(task.level, &task.id, parent)
    }))
}

pub(super) fn outline_record(level: usize, id: &str, parent: Option<&str>) -> String {
    let parent = parent.map_or(String::new(), |parent| format!(r#","ParentTaskID":"{parent}""#));
    format!(r#"{{"Level":{level},"TaskID":"{id}"{parent}}}"#)
}

pub(super) fn resources(plan: &Plan) -> String {
    array((0..plan.resources).map(|index| {
        let id = resource_id(index);
        let (name, cost) = match index % 3 {
            0 => ("Carpenter", "LABOR"),
            1 => ("Concrete", "MATERIAL"),
            _ => ("Dredging firm", "SUBCONTRACT"),
        };
        format!(r#"{{"ID":"{id}","Name":"{name} {index}","ElementOfCostID":"{cost}"}}"#)
    }))
}

pub(super) fn resource_values(plan: &Plan) -> String {
    array((0..plan.resources).map(|index| {
        let id = resource_id(index);
        format!(r#"{{"ResourceID":"{id}","CustomFieldID":"FIELD_05","Value":"Shed {index}"}}"#)
    }))
}

/// One resource for each activity, two for every second one.
pub(super) fn assignments(plan: &mut Plan) -> String {
    let mut records = Vec::new();
    for (index, task) in plan.tasks.iter().enumerate() {
        if task.kind != Kind::Activity {
            continue;
        }
        let first = plan.random.below(plan.resources);
        for resource in first..=first + index % 2 {
            let hours = 8 * task.days;
            let resource = resource_id(resource % plan.resources);
            records.push(format!(
                r#"{{"ResourceID":"{resource}","TaskID":"{}","Budget_AtCompletion_Dollars":{}.50,"Budget_AtCompletion_Hours":{hours}}}"#,
                task.id,
                75 * hours
            ));
        }
    }
    array(records)
}
