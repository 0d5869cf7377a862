//! The constants of the format: 136 fields (section 2.2) and 61 enumeration
//! values (section 2.4). "Conditional" counts as nullable.

use self::Enumeration::*;
use self::Type::{Boolean, Date, Decimal, Integer, String, StringID, Text};

/// The primitive data types of section 2.3.
#[derive(Clone, Copy, Debug, PartialEq, Eq)]
pub enum Type {
    Boolean,
    Date,
    Decimal,
    Integer,
    String,
    StringID,
    Text,
}

#[derive(Clone, Copy, Debug)]
pub struct Field {
    /// The file number of the table, 1 to 19; 0 to 3 on the contract side.
    pub table: usize,
    pub name: &'static str,
    pub kind: Type,
    pub nullable: bool,
}

/// The ten enumerations of section 2.4, in its order.
#[derive(Clone, Copy, Debug, PartialEq, Eq)]
pub enum Enumeration {
    ContractorIDCodeType,
    DurationUnits,
    TaskType,
    TaskSubtype,
    TaskPlanningLevel,
    EarnedValueTechnique,
    TaskConstraintType,
    TaskRelationshipType,
    ElementOfCost,
    CustomField,
}

/// The 20 files by their numbers.
pub const FILE_NAMES: [&str; 20] = [
    "FileType.txt",
    "DatasetMetadata",
    "SourceSoftwareMetadata",
    "ProjectScheduleData",
    "ProjectCustomFieldDefinitions",
    "ProjectCustomFieldValues",
    "Calendars",
    "CalendarWorkshifts",
    "CalendarExceptions",
    "Tasks",
    "TaskScheduleData",
    "TaskCustomFieldDefinitions",
    "TaskCustomFieldValues",
    "TaskConstraints",
    "TaskRelationships",
    "TaskOutlineStructure",
    "Resources",
    "ResourceCustomFieldDefinitions",
    "ResourceCustomFieldValues",
    "ResourceAssignments",
];

pub(crate) const fn given(table: usize, name: &'static str, kind: Type) -> Field {
    Field { table, name, kind, nullable: false }
}

pub(crate) const fn nullable(table: usize, name: &'static str, kind: Type) -> Field {
    Field { table, name, kind, nullable: true }
}

/// The fields of one table, in the order of the format.
pub fn fields_of(table: usize) -> impl Iterator<Item = &'static Field> {
    FIELDS.iter().filter(move |field| field.table == table)
}

/// Whether `id` is a value of the enumeration, with A-Z and a-z alike.
pub fn is_value_of(enumeration: Enumeration, id: &str) -> bool {
    ENUMERATION_VALUES
        .iter()
        .any(|(of, value)| *of == enumeration && value.eq_ignore_ascii_case(id))
}

#[rustfmt::skip]
pub const FIELDS: [Field; 136] = [
    // 1 DatasetMetadata
    given(1, "SecurityMarking", String),
    nullable(1, "DistributionStatement", Text),
    given(1, "ReportingPeriodEndDate", Date),
    nullable(1, "ContractorName", String),
    nullable(1, "ContractorIDCodeTypeID", StringID),
    nullable(1, "ContractorIDCode", String),
    nullable(1, "ContractorAddress_Street", Text),
    nullable(1, "ContractorAddress_City", String),
    nullable(1, "ContractorAddress_State", String),
    nullable(1, "ContractorAddress_Country", String),
    nullable(1, "ContractorAddress_ZipCode", String),
    nullable(1, "PointOfContactName", String),
    nullable(1, "PointOfContactTitle", String),
    nullable(1, "PointOfContactTelephone", String),
    nullable(1, "PointOfContactEmail", String),
    nullable(1, "ContractName", String),
    nullable(1, "ContractNumber", String),
    nullable(1, "ContractType", String),
    nullable(1, "ContractTaskOrEffortName", String),
    nullable(1, "ProgramName", String),
    nullable(1, "ProgramPhase", String),
    nullable(1, "EVMSAccepted", Boolean),
    nullable(1, "EVMSAcceptanceDate", Date),
    // 2 SourceSoftwareMetadata
    nullable(2, "Data_SoftwareName", String),
    nullable(2, "Data_SoftwareVersion", String),
    nullable(2, "Data_SoftwareCompanyName", String),
    nullable(2, "Data_SoftwareComments", Text),
    nullable(2, "Export_SoftwareName", String),
    nullable(2, "Export_SoftwareVersion", String),
    nullable(2, "Export_SoftwareCompanyName", String),
    nullable(2, "Export_SoftwareComments", Text),
    // 3 ProjectScheduleData
    given(3, "StatusDate", Date),
    given(3, "CurrentStartDate", Date),
    given(3, "CurrentFinishDate", Date),
    nullable(3, "BaselineStartDate", Date),
    nullable(3, "BaselineFinishDate", Date),
    nullable(3, "ActualStartDate", Date),
    nullable(3, "ActualFinishDate", Date),
    given(3, "DurationUnitsID", StringID),
    // 4 ProjectCustomFieldDefinitions
    given(4, "CustomFieldID", StringID),
    given(4, "Name", String),
    nullable(4, "Comments", Text),
    // 5 ProjectCustomFieldValues
    given(5, "CustomFieldID", StringID),
    given(5, "Value", String),
    // 6 Calendars
    given(6, "ID", StringID),
    given(6, "Name", String),
    nullable(6, "Comments", Text),
    // 7 CalendarWorkshifts
    given(7, "CalendarID", StringID),
    nullable(7, "Ordinal", Integer),
    nullable(7, "SundayWorkHours", Decimal),
    nullable(7, "MondayWorkHours", Decimal),
    nullable(7, "TuesdayWorkHours", Decimal),
    nullable(7, "WednesdayWorkHours", Decimal),
    nullable(7, "ThursdayWorkHours", Decimal),
    nullable(7, "FridayWorkHours", Decimal),
    nullable(7, "SaturdayWorkHours", Decimal),
    // 8 CalendarExceptions
    given(8, "CalendarID", StringID),
    given(8, "ExceptionDate", Date),
    nullable(8, "WorkHours", Decimal),
    // 9 Tasks
    given(9, "ID", StringID),
    given(9, "Name", String),
    given(9, "TaskTypeID", StringID),
    nullable(9, "TaskSubtypeID", StringID),
    nullable(9, "TaskPlanningLevelID", StringID),
    nullable(9, "WBSElementID", StringID),
    nullable(9, "OBSElementID", StringID),
    nullable(9, "ControlAccountID", StringID),
    nullable(9, "WorkPackageID", StringID),
    nullable(9, "IMPElementID", StringID),
    nullable(9, "SOWReference", String),
    nullable(9, "SubcontractorReference", String),
    nullable(9, "EarnedValueTechniqueID", StringID),
    nullable(9, "OtherEarnedValueTechnique", String),
    nullable(9, "SourceSubprojectReference", String),
    nullable(9, "SourceTaskReference", String),
    nullable(9, "Comments", Text),
    // 10 TaskScheduleData
    given(10, "TaskID", StringID),
    given(10, "CalendarID", StringID),
    given(10, "CurrentDuration", Decimal),
    given(10, "CurrentStartDate", Date),
    given(10, "CurrentFinishDate", Date),
    given(10, "EarlyStartDate", Date),
    given(10, "EarlyFinishDate", Date),
    given(10, "LateStartDate", Date),
    given(10, "LateFinishDate", Date),
    given(10, "FreeFloatDuration", Decimal),
    given(10, "TotalFloatDuration", Decimal),
    given(10, "OnCriticalPath", Boolean),
    nullable(10, "OnDrivingPath", Boolean),
    nullable(10, "BaselineDuration", Decimal),
    nullable(10, "BaselineStartDate", Date),
    nullable(10, "BaselineFinishDate", Date),
    nullable(10, "StartVarianceDuration", Decimal),
    nullable(10, "FinishVarianceDuration", Decimal),
    given(10, "CalculatedPercentComplete", Decimal),
    nullable(10, "PhysicalPercentComplete", Decimal),
    given(10, "RemainingDuration", Decimal),
    nullable(10, "ActualStartDate", Date),
    nullable(10, "ActualFinishDate", Date),
    // 11 TaskCustomFieldDefinitions
    given(11, "CustomFieldID", StringID),
    given(11, "Name", String),
    nullable(11, "Comments", Text),
    // 12 TaskCustomFieldValues
    given(12, "TaskID", StringID),
    given(12, "CustomFieldID", StringID),
    given(12, "Value", String),
    // 13 TaskConstraints
    given(13, "TaskID", StringID),
    given(13, "ConstraintTypeID", StringID),
    nullable(13, "OtherConstraintType", String),
    nullable(13, "ConstraintDate", Date),
    // 14 TaskRelationships
    given(14, "PredecessorTaskID", StringID),
    given(14, "SuccessorTaskID", StringID),
    given(14, "RelationshipTypeID", StringID),
    nullable(14, "LagDuration", Decimal),
    nullable(14, "LagCalendarID", StringID),
    // 15 TaskOutlineStructure
    given(15, "Level", Integer),
    given(15, "TaskID", StringID),
    nullable(15, "ParentTaskID", StringID),
    // 16 Resources
    given(16, "ID", StringID),
    given(16, "Name", String),
    given(16, "ElementOfCostID", StringID),
    nullable(16, "Comments", Text),
    // 17 ResourceCustomFieldDefinitions
    given(17, "CustomFieldID", StringID),
    given(17, "Name", String),
    nullable(17, "Comments", Text),
    // 18 ResourceCustomFieldValues
    given(18, "ResourceID", StringID),
    given(18, "CustomFieldID", StringID),
    given(18, "Value", String),
    // 19 ResourceAssignments
    given(19, "ResourceID", StringID),
    given(19, "TaskID", StringID),
    nullable(19, "Budget_AtCompletion_Dollars", Decimal),
    nullable(19, "Budget_AtCompletion_Hours", Decimal),
    nullable(19, "Estimate_ToComplete_Dollars", Decimal),
    nullable(19, "Estimate_ToComplete_Hours", Decimal),
    nullable(19, "Actual_ToDate_Dollars", Decimal),
    nullable(19, "Actual_ToDate_Hours", Decimal),
    nullable(19, "PhysicalPercentComplete", Decimal),
];

#[rustfmt::skip]
pub const ENUMERATION_VALUES: [(Enumeration, &str); 61] = [
    // 2.4.1
    (ContractorIDCodeType, "DUNS"),
    (ContractorIDCodeType, "DUNS_PLUS_4"),
    (ContractorIDCodeType, "CAGE"),
    // 2.4.2
    (DurationUnits, "DAYS"),
    (DurationUnits, "HOURS"),
    // 2.4.3
    (TaskType, "ACTIVITY"),
    (TaskType, "MILESTONE"),
    (TaskType, "SUMMARY"),
    (TaskType, "HAMMOCK"),
    // 2.4.4
    (TaskSubtype, "RISK_MITIGATION_TASK"),
    (TaskSubtype, "SCHEDULE_VISIBILITY_TASK"),
    (TaskSubtype, "SCHEDULE_MARGIN"),
    (TaskSubtype, "CONTRACTUAL_MILESTONE"),
    // 2.4.5
    (TaskPlanningLevel, "SUMMARY_LEVEL_PLANNING_PACKAGE"),
    (TaskPlanningLevel, "CONTROL_ACCOUNT"),
    (TaskPlanningLevel, "PLANNING_PACKAGE"),
    (TaskPlanningLevel, "WORK_PACKAGE"),
    (TaskPlanningLevel, "ACTIVITY"),
    // 2.4.6
    (EarnedValueTechnique, "APPORTIONED_EFFORT"),
    (EarnedValueTechnique, "LEVEL_OF_EFFORT"),
    (EarnedValueTechnique, "MILESTONE"),
    (EarnedValueTechnique, "FIXED_0_100"),
    (EarnedValueTechnique, "FIXED_100_0"),
    (EarnedValueTechnique, "FIXED_X_Y"),
    (EarnedValueTechnique, "PERCENT_COMPLETE"),
    (EarnedValueTechnique, "STANDARDS"),
    (EarnedValueTechnique, "UNITS"),
    (EarnedValueTechnique, "OTHER_DISCRETE"),
    // 2.4.7
    (TaskConstraintType, "START_NO_EARLIER_THAN"),
    (TaskConstraintType, "FINISH_NO_EARLIER_THAN"),
    (TaskConstraintType, "START_NO_LATER_THAN"),
    (TaskConstraintType, "FINISH_NO_LATER_THAN"),
    (TaskConstraintType, "MUST_START_ON"),
    (TaskConstraintType, "MUST_FINISH_ON"),
    (TaskConstraintType, "AS_LATE_AS_POSSIBLE"),
    (TaskConstraintType, "SHOULD_START_NO_LATER_THAN"),
    (TaskConstraintType, "SHOULD_FINISH_NO_LATER_THAN"),
    (TaskConstraintType, "SHOULD_START_ON"),
    (TaskConstraintType, "SHOULD_FINISH_ON"),
    (TaskConstraintType, "RESOURCE_LEVELING_START_DELAY"),
    (TaskConstraintType, "RESOURCE_LEVELING_FINISH_DELAY"),
    (TaskConstraintType, "DEADLINE"),
    (TaskConstraintType, "OTHER"),
    // 2.4.8
    (TaskRelationshipType, "FINISH_TO_START"),
    (TaskRelationshipType, "START_TO_START"),
    (TaskRelationshipType, "FINISH_TO_FINISH"),
    (TaskRelationshipType, "START_TO_FINISH"),
    // 2.4.9
    (ElementOfCost, "LABOR"),
    (ElementOfCost, "MATERIAL"),
    (ElementOfCost, "OTHER_DIRECT_COSTS"),
    (ElementOfCost, "SUBCONTRACT"),
    // 2.4.10
    (CustomField, "FIELD_01"),
    (CustomField, "FIELD_02"),
    (CustomField, "FIELD_03"),
    (CustomField, "FIELD_04"),
    (CustomField, "FIELD_05"),
    (CustomField, "FIELD_06"),
    (CustomField, "FIELD_07"),
    (CustomField, "FIELD_08"),
    (CustomField, "FIELD_09"),
    (CustomField, "FIELD_10"),
];

#[cfg(test)]
mod tests {
    use super::*;

    #[test]
    fn each_table_has_its_number_of_fields() {
        let counts: Vec<usize> = (1..=19).map(|table| fields_of(table).count()).collect();
        assert_eq!(counts, [23, 8, 8, 3, 2, 3, 9, 3, 17, 23, 3, 3, 4, 5, 3, 4, 3, 3, 9]);
    }

    #[test]
    fn no_table_has_a_name_twice() {
        for table in 1..=19 {
            let names: std::collections::HashSet<&str> =
                fields_of(table).map(|field| field.name).collect();
            assert_eq!(names.len(), fields_of(table).count());
        }
    }

    #[test]
    fn enumeration_values_are_compared_without_case() {
        assert!(is_value_of(ElementOfCost, "labor"));
        assert!(is_value_of(CustomField, "Field_10"));
        assert!(!is_value_of(CustomField, "FIELD_11"));
        assert!(!is_value_of(TaskType, "LABOR"));
    }
}
