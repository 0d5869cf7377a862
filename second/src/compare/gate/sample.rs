//! A set of 20 files that is accepted, small enough to read: three records or
//! more in each table, so that each has a first, a middle and a last one.

use crate::board::{Board, Mark};
use crate::bundle::{build, Files};
use crate::gate::judge;

/// Files as owned bytes; an omitted one is nothing.
#[derive(Clone, Debug, PartialEq, Eq)]
pub struct Set {
    pub files: Vec<Option<Vec<u8>>>,
}

impl Set {
    pub fn empty() -> Set {
        Set { files: vec![None; 20] }
    }

    pub fn with(&self, number: usize, contents: &str) -> Set {
        self.with_bytes(number, contents.as_bytes())
    }

    pub fn with_bytes(&self, number: usize, contents: &[u8]) -> Set {
        let mut set = self.clone();
        set.files[number] = Some(contents.to_vec());
        set
    }

    pub fn without(&self, number: usize) -> Set {
        let mut set = self.clone();
        set.files[number] = None;
        set
    }

    pub fn bundle(&self) -> Vec<u8> {
        let mut files: Files = [None; 20];
        for (part, file) in files.iter_mut().zip(&self.files) {
            *part = file.as_deref();
        }
        build(&files)
    }

    pub fn board(&self) -> Board {
        let verdict = judge(&self.bundle());
        assert_eq!(verdict.refusal, 0);
        verdict.board
    }

    /// Kind, place and companion.
    pub fn mark(&self, number: usize) -> (u32, u32, u32) {
        triple(self.board().marks[number])
    }

    /// The numbers of the marks that don't hold, and those marks.
    pub fn faults(&self) -> Vec<(usize, (u32, u32, u32))> {
        self.board().faults().map(|(number, mark)| (number, triple(mark))).collect()
    }
}

fn triple(mark: Mark) -> (u32, u32, u32) {
    (mark.kind, mark.place, mark.companion)
}

/// The mark of one file by itself.
pub fn file_mark(number: usize, contents: &[u8]) -> (u32, u32, u32) {
    Set::empty().with_bytes(number, contents).mark(number)
}

/// A record of TaskScheduleData, with more members after its own.
pub fn schedule(task: &str, calendar: &str, more: &str) -> String {
    format!(
        r#"{{"TaskID":"{task}","CalendarID":"{calendar}","CurrentDuration":5,
        "CurrentStartDate":"2020-01-01","CurrentFinishDate":"2020-01-06",
        "EarlyStartDate":"2020-01-01","EarlyFinishDate":"2020-01-06",
        "LateStartDate":"2020-01-01","LateFinishDate":"2020-01-06",
        "FreeFloatDuration":0,"TotalFloatDuration":0.5,"OnCriticalPath":true,
        "CalculatedPercentComplete":0,"RemainingDuration":5{more}}}"#
    )
}

/// The elements as a JSON array.
pub fn array(elements: &[String]) -> String {
    format!("[{}]", elements.join(","))
}

pub const BASELINE: &str = r#","BaselineDuration":5,"BaselineStartDate":"2020-01-01",
    "BaselineFinishDate":"2020-01-06","StartVarianceDuration":0,"FinishVarianceDuration":-1"#;

pub fn accepted() -> Set {
    let schedules = array(&[
        schedule("S1", "C1", ""),
        schedule("s2", "c2", BASELINE),
        schedule("T1", "C1", ""),
        schedule("T2", "C1", r#","ActualStartDate":"2020-01-02","OnDrivingPath":false"#),
        schedule("T3", "C2", ""),
        schedule("t\\/4 B", "C4", ""),
    ]);
    Set::empty()
        .with(0, "IPMDAR_SCHEDULE_PERFORMANCE_DATASET/1.0")
        .with(
            1,
            r#"{"SecurityMarking":"U","ReportingPeriodEndDate":"2020-01-31",
            "ContractorIDCodeTypeID":"cage","ContractorIDCode":"1ABC2",
            "EVMSAccepted":true,"EVMSAcceptanceDate":"2019-05-05"}"#,
        )
        .with(2, r#"{"Data_SoftwareName":"Planner","Data_SoftwareComments":"two  spaces\n"}"#)
        .with(
            3,
            r#"{"StatusDate":"2020-01-31","CurrentStartDate":"2020-01-01",
            "CurrentFinishDate":"2020-12-31","DurationUnitsID":"Days"}"#,
        )
        .with(
            4,
            r#"[{"CustomFieldID":"FIELD_01","Name":"Site"},{"CustomFieldID":"field_02","Name":"Bay"},
            {"CustomFieldID":"FIELD_06","Name":"D\u00f6ck","Comments":" one \uD83D\uDE00\n"}]"#,
        )
        .with(
            5,
            r#"[{"CustomFieldID":"field_01","Value":"North"},{"CustomFieldID":"FIELD_02","Value":"7"},
            {"CustomFieldID":"Field_06","Value":"ü"}]"#,
        )
        .with(
            6,
            r#"[{"ID":"C1","Name":"Five days"},{"ID":"C2","Name":"One day"},{"ID":"C4","Name":"Any"}]"#,
        )
        .with(
            7,
            r#"[{"CalendarID":"c1","MondayWorkHours":8,"FridayWorkHours":4.5},
            {"CalendarID":"C1","Ordinal":1,"SundayWorkHours":-0.0,"MondayWorkHours":1e-3},
            {"CalendarID":"C2","Ordinal":0,"SaturdayWorkHours":8},
            {"CalendarID":"c\u0034","Ordinal":-3,"SundayWorkHours":1,"TuesdayWorkHours":0}]"#,
        )
        .with(
            8,
            r#"[{"CalendarID":"C1","ExceptionDate":"2020-12-25"},
            {"CalendarID":"C1","ExceptionDate":"2020-12-26","WorkHours":-0},
            {"CalendarID":"C2","ExceptionDate":"2020-12-25","WorkHours":4}]"#,
        )
        .with(
            9,
            r#"[{"ID":"S1","Name":"Whole","TaskTypeID":"SUMMARY"},
            {"ID":"S2","Name":"Part","TaskTypeID":"summary","TaskSubtypeID":"schedule_margin"},
            {"ID":"T1","Name":"Dig","TaskTypeID":"ACTIVITY","TaskPlanningLevelID":"work_package",
             "EarnedValueTechniqueID":"fixed_x_y","OtherEarnedValueTechnique":"20/80"},
            {"ID":"T2","Name":"Dug","TaskTypeID":"MILESTONE","EarnedValueTechniqueID":"UNITS"},
            {"ID":"T3","Name":"Watch","TaskTypeID":"HAMMOCK"},
            {"ID":"T/4 b","Name":"Late","TaskTypeID":"Milestone","TaskPlanningLevelID":"ACTIVITY"}]"#,
        )
        .with(10, &schedules)
        .with(
            11,
            r#"[{"CustomFieldID":"FIELD_10","Name":"Crew"},{"CustomFieldID":"FIELD_08","Name":"Gang"},
            {"CustomFieldID":"field_07","Name":"Watch"}]"#,
        )
        .with(
            12,
            r#"[{"TaskID":"t1","CustomFieldID":"field_10","Value":"Blue"},
            {"TaskID":"T1","CustomFieldID":"FIELD_08","Value":"Blue"},
            {"TaskID":"T\/4 B","CustomFieldID":"field_10","Value":"Red"}]"#,
        )
        .with(
            13,
            r#"[{"TaskID":"T1","ConstraintTypeID":"DEADLINE","ConstraintDate":"2020-02-02"},
            {"TaskID":"T1","ConstraintTypeID":"other","OtherConstraintType":"Tide"},
            {"TaskID":"T2","ConstraintTypeID":"As_Late_As_Possible"}]"#,
        )
        .with(
            14,
            r#"[{"PredecessorTaskID":"T1","SuccessorTaskID":"T2","RelationshipTypeID":"FINISH_TO_START"},
            {"PredecessorTaskID":"T1","SuccessorTaskID":"T2","RelationshipTypeID":"START_TO_START",
             "LagDuration":2,"LagCalendarID":"c2"},
            {"PredecessorTaskID":"T2","SuccessorTaskID":"T1","RelationshipTypeID":"FINISH_TO_START"}]"#,
        )
        .with(
            15,
            r#"[{"Level":1,"TaskID":"S1"},
            {"Level":2,"TaskID":"S2","ParentTaskID":"s1"},
            {"Level":3,"TaskID":"T1","ParentTaskID":"S2"},
            {"Level":3,"TaskID":"T2","ParentTaskID":"S2"},
            {"Level":2.0,"TaskID":"T3","ParentTaskID":"S1"}]"#,
        )
        .with(
            16,
            r#"[{"ID":"ENG-01","Name":"Engineer","ElementOfCostID":"labor"},
            {"ID":"MAT-01","Name":"Steel","ElementOfCostID":"MATERIAL"},
            {"ID":"Yard/\"7\"","Name":"Yard","ElementOfCostID":"Subcontract","Comments":"\t"}]"#,
        )
        .with(
            17,
            r#"[{"CustomFieldID":"FIELD_03","Name":"Depot"},{"CustomFieldID":"FIELD_05","Name":"Rate"},
            {"CustomFieldID":"Field_09","Name":"Rank"}]"#,
        )
        .with(
            18,
            r#"[{"ResourceID":"eng-01","CustomFieldID":"FIELD_03","Value":"West"},
            {"ResourceID":"MAT-01","CustomFieldID":"FIELD_03","Value":"East"},
            {"ResourceID":"ENG-01","CustomFieldID":"FIELD_09","Value":"2"}]"#,
        )
        .with(
            19,
            r#"[{"ResourceID":"ENG-01","TaskID":"T1","Budget_AtCompletion_Hours":40},
            {"ResourceID":"MAT-01","TaskID":"T1"},{"ResourceID":"ENG-01","TaskID":"T2"},
            {"ResourceID":"yard\/\u00227\"","TaskID":"t3","Actual_ToDate_Dollars":-1.5e3}]"#,
        )
}
