//! The numbers with which an operation refuses or a run ends, and their words: from words/refusals.txt.

/// What a refusal is about.
#[derive(Clone, Copy, Debug, PartialEq, Eq, Hash)]
pub enum Cause {
    /// What the caller lent or asked for does not fit.
    Call,
    /// The lesson is refused and does not run.
    Lesson,
    /// The library is refused, so it cannot be joined to a lesson.
    Library,
    /// The frames are refused and do not run.
    Frames,
    /// The run ended by a fault of the lesson or of the frames.
    Fault,
    /// A limit stopped the run.
    Limit,
}

// [words/write numbers
/// Why a lesson or a text of frames is refused, or how a run ended otherwise than by itself.
#[derive(Clone, Copy, Debug, PartialEq, Eq, Hash)]
pub enum Kind {
    /// 1: The work table has fewer than 16,384 words.
    TableTooShort,
    /// 2: The call limit is not 1 to 64.
    CallLimitOutOfRange,
    /// 3: The heap strip has more than 16,384 words.
    HeapTooLong,
    /// 4: The strip has fewer words than the lesson has classes beside main's.
    StripTooShort,
    /// 10: The lesson has more than 16,384 bytes.
    SourceTooLong,
    /// 11: No word, number or mark of the language begins with this byte.
    NoToken,
    /// 12: A block comment is opened and never closed; comments nest, so each opening needs its own closing.
    CommentNotClosed,
    /// 13: A name has more than 255 letters, digits and underscores.
    NameTooLong,
    /// 14: A number is larger than 2147483647, or one with a point larger than 2147483.647.
    LiteralTooLarge,
    /// 15: The lesson has more than 2,048 words, numbers and marks.
    TooManyTokens,
    /// 16: No program goes on like this from here: something is missing, misplaced or too much.
    NotInGrammar,
    /// 17: A statement or an expression lies inside more than 63 others.
    TooDeep,
    /// 20: Another class before this one has the same name.
    ClassRepeated,
    /// 21: The lesson has no class of the name after `extends`; the main class cannot be extended.
    ParentUnknown,
    /// 22: The class extends itself, or its parents lead into a loop.
    ChainEndless,
    /// 23: The class has another field of the same name.
    FieldRepeated,
    /// 24: The lesson has no class of this name; the main class is no type.
    TypeUnknown,
    /// 25: The class has another method of the same name.
    MethodRepeated,
    /// 26: A method of this name in a class above has other parameter types, or a result that this one's does not fit.
    BadRedeclaration,
    /// 27: The method has another parameter or local of the same name.
    VariableRepeated,
    /// 28: The method has more than 32 parameters and locals together.
    TooManyVariables,
    /// 30: No local, parameter or field of this name can be seen here; main sees none at all.
    NameUnknown,
    /// 31: This part has another type than its place needs.
    WrongType,
    /// 32: Neither the class nor a class above it has a method of this name.
    MethodUnknown,
    /// 33: The method takes another number of arguments.
    ArgumentCount,
    /// 34: Main belongs to no object, so it has no `this`.
    ThisInMain,
    /// 40: There is no object or array here: the reference is null.
    NullReference,
    /// 41: The index is negative, or not below the array's length.
    IndexOutOfRange,
    /// 42: An array cannot have a negative length.
    NegativeSize,
    /// 50: The budget of steps or frames is spent, and another is due.
    BudgetSpent,
    /// 51: The heap strip has no room for this object or array.
    HeapFull,
    /// 52: As many calls are open as the call limit allows.
    CallsFull,
    /// 53: The output strip has no room for another number.
    OutputFull,
    /// 60: A number begins with 0 and another digit, which means another number in Java.
    LeadingZero,
    /// 61: The strip is too short for the printed lesson.
    TextTooLong,
    /// 62: The register strip has not exactly 16 bytes.
    RegistersNotSixteen,
    /// 63: The cable has registers 0 to 15 only.
    RegisterOutOfRange,
    /// 64: A register takes 0 to 255 only.
    ValueOutOfRange,
    /// 65: A number with a point has other than three digits behind it.
    NotThreeDigits,
    /// 66: The library has something other than class declarations, or Read's rules and bounds do not hold for it.
    LibraryRefused,
    /// 67: The strip is too short for the lesson and the classes of the library.
    JoinedTooLong,
    /// 68: The strip is too short for the frames of the lesson, or the stack strip has fewer than 140,000 entries.
    FramesTooShort,
    /// 69: The line is something other than ten lower-case hexadecimal digits and a line feed.
    OtherForm,
    /// 70: The code table does not allow this frame, by its code, its operand or a value that it takes; or the stack strip is full, or the line is past the last.
    FrameFault,
    /// 71: The record does not fit the frames, the limits or the strips, or its counts and the new budget are together above 4294967295.
    RecordUnfit,
    /// 72: The price of a call is neither 1 nor 10.
    PriceUnfit,
}

impl Kind {
    /// All of them, by their numbers.
    pub const ALL: [Kind; 46] = [
        Kind::TableTooShort,
        Kind::CallLimitOutOfRange,
        Kind::HeapTooLong,
        Kind::StripTooShort,
        Kind::SourceTooLong,
        Kind::NoToken,
        Kind::CommentNotClosed,
        Kind::NameTooLong,
        Kind::LiteralTooLarge,
        Kind::TooManyTokens,
        Kind::NotInGrammar,
        Kind::TooDeep,
        Kind::ClassRepeated,
        Kind::ParentUnknown,
        Kind::ChainEndless,
        Kind::FieldRepeated,
        Kind::TypeUnknown,
        Kind::MethodRepeated,
        Kind::BadRedeclaration,
        Kind::VariableRepeated,
        Kind::TooManyVariables,
        Kind::NameUnknown,
        Kind::WrongType,
        Kind::MethodUnknown,
        Kind::ArgumentCount,
        Kind::ThisInMain,
        Kind::NullReference,
        Kind::IndexOutOfRange,
        Kind::NegativeSize,
        Kind::BudgetSpent,
        Kind::HeapFull,
        Kind::CallsFull,
        Kind::OutputFull,
        Kind::LeadingZero,
        Kind::TextTooLong,
        Kind::RegistersNotSixteen,
        Kind::RegisterOutOfRange,
        Kind::ValueOutOfRange,
        Kind::NotThreeDigits,
        Kind::LibraryRefused,
        Kind::JoinedTooLong,
        Kind::FramesTooShort,
        Kind::OtherForm,
        Kind::FrameFault,
        Kind::RecordUnfit,
        Kind::PriceUnfit,
    ];

    /// The number that documents 01 and 02 give it.
    pub fn number(self) -> u32 {
        match self {
            Kind::TableTooShort => 1,
            Kind::CallLimitOutOfRange => 2,
            Kind::HeapTooLong => 3,
            Kind::StripTooShort => 4,
            Kind::SourceTooLong => 10,
            Kind::NoToken => 11,
            Kind::CommentNotClosed => 12,
            Kind::NameTooLong => 13,
            Kind::LiteralTooLarge => 14,
            Kind::TooManyTokens => 15,
            Kind::NotInGrammar => 16,
            Kind::TooDeep => 17,
            Kind::ClassRepeated => 20,
            Kind::ParentUnknown => 21,
            Kind::ChainEndless => 22,
            Kind::FieldRepeated => 23,
            Kind::TypeUnknown => 24,
            Kind::MethodRepeated => 25,
            Kind::BadRedeclaration => 26,
            Kind::VariableRepeated => 27,
            Kind::TooManyVariables => 28,
            Kind::NameUnknown => 30,
            Kind::WrongType => 31,
            Kind::MethodUnknown => 32,
            Kind::ArgumentCount => 33,
            Kind::ThisInMain => 34,
            Kind::NullReference => 40,
            Kind::IndexOutOfRange => 41,
            Kind::NegativeSize => 42,
            Kind::BudgetSpent => 50,
            Kind::HeapFull => 51,
            Kind::CallsFull => 52,
            Kind::OutputFull => 53,
            Kind::LeadingZero => 60,
            Kind::TextTooLong => 61,
            Kind::RegistersNotSixteen => 62,
            Kind::RegisterOutOfRange => 63,
            Kind::ValueOutOfRange => 64,
            Kind::NotThreeDigits => 65,
            Kind::LibraryRefused => 66,
            Kind::JoinedTooLong => 67,
            Kind::FramesTooShort => 68,
            Kind::OtherForm => 69,
            Kind::FrameFault => 70,
            Kind::RecordUnfit => 71,
            Kind::PriceUnfit => 72,
        }
    }

    /// The kind of this number.
    pub fn of(number: u32) -> Option<Kind> {
        match number {
            1 => Some(Kind::TableTooShort),
            2 => Some(Kind::CallLimitOutOfRange),
            3 => Some(Kind::HeapTooLong),
            4 => Some(Kind::StripTooShort),
            10 => Some(Kind::SourceTooLong),
            11 => Some(Kind::NoToken),
            12 => Some(Kind::CommentNotClosed),
            13 => Some(Kind::NameTooLong),
            14 => Some(Kind::LiteralTooLarge),
            15 => Some(Kind::TooManyTokens),
            16 => Some(Kind::NotInGrammar),
            17 => Some(Kind::TooDeep),
            20 => Some(Kind::ClassRepeated),
            21 => Some(Kind::ParentUnknown),
            22 => Some(Kind::ChainEndless),
            23 => Some(Kind::FieldRepeated),
            24 => Some(Kind::TypeUnknown),
            25 => Some(Kind::MethodRepeated),
            26 => Some(Kind::BadRedeclaration),
            27 => Some(Kind::VariableRepeated),
            28 => Some(Kind::TooManyVariables),
            30 => Some(Kind::NameUnknown),
            31 => Some(Kind::WrongType),
            32 => Some(Kind::MethodUnknown),
            33 => Some(Kind::ArgumentCount),
            34 => Some(Kind::ThisInMain),
            40 => Some(Kind::NullReference),
            41 => Some(Kind::IndexOutOfRange),
            42 => Some(Kind::NegativeSize),
            50 => Some(Kind::BudgetSpent),
            51 => Some(Kind::HeapFull),
            52 => Some(Kind::CallsFull),
            53 => Some(Kind::OutputFull),
            60 => Some(Kind::LeadingZero),
            61 => Some(Kind::TextTooLong),
            62 => Some(Kind::RegistersNotSixteen),
            63 => Some(Kind::RegisterOutOfRange),
            64 => Some(Kind::ValueOutOfRange),
            65 => Some(Kind::NotThreeDigits),
            66 => Some(Kind::LibraryRefused),
            67 => Some(Kind::JoinedTooLong),
            68 => Some(Kind::FramesTooShort),
            69 => Some(Kind::OtherForm),
            70 => Some(Kind::FrameFault),
            71 => Some(Kind::RecordUnfit),
            72 => Some(Kind::PriceUnfit),
            _ => None,
        }
    }

    /// Its name, in two to five words.
    pub fn name(self) -> &'static str {
        match self {
            Kind::TableTooShort => "table too short",
            Kind::CallLimitOutOfRange => "call limit out of range",
            Kind::HeapTooLong => "heap too long",
            Kind::StripTooShort => "strip too short",
            Kind::SourceTooLong => "source too long",
            Kind::NoToken => "no token",
            Kind::CommentNotClosed => "comment not closed",
            Kind::NameTooLong => "name too long",
            Kind::LiteralTooLarge => "literal too large",
            Kind::TooManyTokens => "too many tokens",
            Kind::NotInGrammar => "not in grammar",
            Kind::TooDeep => "too deep",
            Kind::ClassRepeated => "class repeated",
            Kind::ParentUnknown => "parent unknown",
            Kind::ChainEndless => "chain endless",
            Kind::FieldRepeated => "field repeated",
            Kind::TypeUnknown => "type unknown",
            Kind::MethodRepeated => "method repeated",
            Kind::BadRedeclaration => "bad redeclaration",
            Kind::VariableRepeated => "variable repeated",
            Kind::TooManyVariables => "too many variables",
            Kind::NameUnknown => "name unknown",
            Kind::WrongType => "wrong type",
            Kind::MethodUnknown => "method unknown",
            Kind::ArgumentCount => "argument count",
            Kind::ThisInMain => "this in main",
            Kind::NullReference => "null reference",
            Kind::IndexOutOfRange => "index out of range",
            Kind::NegativeSize => "negative size",
            Kind::BudgetSpent => "budget spent",
            Kind::HeapFull => "heap full",
            Kind::CallsFull => "calls full",
            Kind::OutputFull => "output full",
            Kind::LeadingZero => "leading zero",
            Kind::TextTooLong => "text too long",
            Kind::RegistersNotSixteen => "registers not sixteen",
            Kind::RegisterOutOfRange => "register out of range",
            Kind::ValueOutOfRange => "value out of range",
            Kind::NotThreeDigits => "not three digits",
            Kind::LibraryRefused => "library refused",
            Kind::JoinedTooLong => "joined too long",
            Kind::FramesTooShort => "frames too short",
            Kind::OtherForm => "other form",
            Kind::FrameFault => "frame fault",
            Kind::RecordUnfit => "record unfit",
            Kind::PriceUnfit => "price unfit",
        }
    }

    /// What it means, in a sentence.
    pub fn sentence(self) -> &'static str {
        match self {
            Kind::TableTooShort => "The work table has fewer than 16,384 words.",
            Kind::CallLimitOutOfRange => "The call limit is not 1 to 64.",
            Kind::HeapTooLong => "The heap strip has more than 16,384 words.",
            Kind::StripTooShort => "The strip has fewer words than the lesson has classes beside main's.",
            Kind::SourceTooLong => "The lesson has more than 16,384 bytes.",
            Kind::NoToken => "No word, number or mark of the language begins with this byte.",
            Kind::CommentNotClosed => "A block comment is opened and never closed; comments nest, so each opening needs its own closing.",
            Kind::NameTooLong => "A name has more than 255 letters, digits and underscores.",
            Kind::LiteralTooLarge => "A number is larger than 2147483647, or one with a point larger than 2147483.647.",
            Kind::TooManyTokens => "The lesson has more than 2,048 words, numbers and marks.",
            Kind::NotInGrammar => "No program goes on like this from here: something is missing, misplaced or too much.",
            Kind::TooDeep => "A statement or an expression lies inside more than 63 others.",
            Kind::ClassRepeated => "Another class before this one has the same name.",
            Kind::ParentUnknown => "The lesson has no class of the name after `extends`; the main class cannot be extended.",
            Kind::ChainEndless => "The class extends itself, or its parents lead into a loop.",
            Kind::FieldRepeated => "The class has another field of the same name.",
            Kind::TypeUnknown => "The lesson has no class of this name; the main class is no type.",
            Kind::MethodRepeated => "The class has another method of the same name.",
            Kind::BadRedeclaration => "A method of this name in a class above has other parameter types, or a result that this one's does not fit.",
            Kind::VariableRepeated => "The method has another parameter or local of the same name.",
            Kind::TooManyVariables => "The method has more than 32 parameters and locals together.",
            Kind::NameUnknown => "No local, parameter or field of this name can be seen here; main sees none at all.",
            Kind::WrongType => "This part has another type than its place needs.",
            Kind::MethodUnknown => "Neither the class nor a class above it has a method of this name.",
            Kind::ArgumentCount => "The method takes another number of arguments.",
            Kind::ThisInMain => "Main belongs to no object, so it has no `this`.",
            Kind::NullReference => "There is no object or array here: the reference is null.",
            Kind::IndexOutOfRange => "The index is negative, or not below the array's length.",
            Kind::NegativeSize => "An array cannot have a negative length.",
            Kind::BudgetSpent => "The budget of steps or frames is spent, and another is due.",
            Kind::HeapFull => "The heap strip has no room for this object or array.",
            Kind::CallsFull => "As many calls are open as the call limit allows.",
            Kind::OutputFull => "The output strip has no room for another number.",
            Kind::LeadingZero => "A number begins with 0 and another digit, which means another number in Java.",
            Kind::TextTooLong => "The strip is too short for the printed lesson.",
            Kind::RegistersNotSixteen => "The register strip has not exactly 16 bytes.",
            Kind::RegisterOutOfRange => "The cable has registers 0 to 15 only.",
            Kind::ValueOutOfRange => "A register takes 0 to 255 only.",
            Kind::NotThreeDigits => "A number with a point has other than three digits behind it.",
            Kind::LibraryRefused => "The library has something other than class declarations, or Read's rules and bounds do not hold for it.",
            Kind::JoinedTooLong => "The strip is too short for the lesson and the classes of the library.",
            Kind::FramesTooShort => "The strip is too short for the frames of the lesson, or the stack strip has fewer than 140,000 entries.",
            Kind::OtherForm => "The line is something other than ten lower-case hexadecimal digits and a line feed.",
            Kind::FrameFault => "The code table does not allow this frame, by its code, its operand or a value that it takes; or the stack strip is full, or the line is past the last.",
            Kind::RecordUnfit => "The record does not fit the frames, the limits or the strips, or its counts and the new budget are together above 4294967295.",
            Kind::PriceUnfit => "The price of a call is neither 1 nor 10.",
        }
    }

    /// What it is about.
    pub fn cause(self) -> Cause {
        match self {
            Kind::TableTooShort => Cause::Call,
            Kind::CallLimitOutOfRange => Cause::Call,
            Kind::HeapTooLong => Cause::Call,
            Kind::StripTooShort => Cause::Call,
            Kind::SourceTooLong => Cause::Lesson,
            Kind::NoToken => Cause::Lesson,
            Kind::CommentNotClosed => Cause::Lesson,
            Kind::NameTooLong => Cause::Lesson,
            Kind::LiteralTooLarge => Cause::Lesson,
            Kind::TooManyTokens => Cause::Lesson,
            Kind::NotInGrammar => Cause::Lesson,
            Kind::TooDeep => Cause::Lesson,
            Kind::ClassRepeated => Cause::Lesson,
            Kind::ParentUnknown => Cause::Lesson,
            Kind::ChainEndless => Cause::Lesson,
            Kind::FieldRepeated => Cause::Lesson,
            Kind::TypeUnknown => Cause::Lesson,
            Kind::MethodRepeated => Cause::Lesson,
            Kind::BadRedeclaration => Cause::Lesson,
            Kind::VariableRepeated => Cause::Lesson,
            Kind::TooManyVariables => Cause::Lesson,
            Kind::NameUnknown => Cause::Lesson,
            Kind::WrongType => Cause::Lesson,
            Kind::MethodUnknown => Cause::Lesson,
            Kind::ArgumentCount => Cause::Lesson,
            Kind::ThisInMain => Cause::Lesson,
            Kind::NullReference => Cause::Fault,
            Kind::IndexOutOfRange => Cause::Fault,
            Kind::NegativeSize => Cause::Fault,
            Kind::BudgetSpent => Cause::Limit,
            Kind::HeapFull => Cause::Limit,
            Kind::CallsFull => Cause::Limit,
            Kind::OutputFull => Cause::Limit,
            Kind::LeadingZero => Cause::Lesson,
            Kind::TextTooLong => Cause::Call,
            Kind::RegistersNotSixteen => Cause::Call,
            Kind::RegisterOutOfRange => Cause::Fault,
            Kind::ValueOutOfRange => Cause::Fault,
            Kind::NotThreeDigits => Cause::Lesson,
            Kind::LibraryRefused => Cause::Library,
            Kind::JoinedTooLong => Cause::Call,
            Kind::FramesTooShort => Cause::Call,
            Kind::OtherForm => Cause::Frames,
            Kind::FrameFault => Cause::Fault,
            Kind::RecordUnfit => Cause::Call,
            Kind::PriceUnfit => Cause::Call,
        }
    }
}
// words/write]
