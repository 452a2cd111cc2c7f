"""Words of SNL and of C that the port knows: types, their sizes, constants, and functions that print."""
from fractions import Fraction

WHOLE_TYPES = frozenset(
    "char short int long unsigned int8_t uint8_t int16_t uint16_t int32_t uint32_t int64_t uint64_t".split()
)
QUANTITY_TYPES = frozenset({"float", "double"})
TYPES = WHOLE_TYPES | QUANTITY_TYPES | {"string", "void", "struct", "enum"}
# Types of C that SNL has as names: they count as types only where a name stands behind them.
SOFT_TYPES = frozenset({"const", "static", "signed", "bool", "volatile", "register", "time_t", "epicsTimeStamp", "TS_STAMP"})
# What `snc` calls by another name, since its largest type is `long`.
LONG_TYPES = frozenset(
    {"int64_t", "uint64_t", "unsigned long", "long long", "unsigned long long", "long int", "unsigned long int"}
)
BYTES = {"char": 1, "short": 2, "int": 4, "long": 8, "float": 4, "double": 8, "unsigned": 4, "string": 40}

STATUSES = (
    "READ WRITE HIHI HIGH LOLO LOW STATE COS COMM TIMEOUT HW_LIMIT CALC SCAN LINK SOFT BAD_SUB UDF DISABLE SIMM "
    "READ_ACCESS WRITE_ACCESS"
).split()
SEVERITIES = {"OK": 0, "NONE": 0, "MINOR": 1, "MAJOR": 2, "INVALID": 3, "ERROR": -1}
# Constants of the sequencer and of C that are no names of the language here.
CONSTANTS = {f"pvStat{name}": number for number, name in enumerate(STATUSES, 1)}
CONSTANTS.update({f"pvSevr{name}": number for name, number in SEVERITIES.items()})
CONSTANTS.update({"true": 1, "false": 0, "NULL": 0})
# Constants that the language has.
PREDEFINED = {"TRUE": 1, "FALSE": 0, "pvStatOK": 0, "pvStatERROR": -1, "pvStatDISCONN": -2}

# Functions that print, with the place of the format among their arguments.
PRINTERS = {
    "printf": 0,
    "seqLog": 0,
    "errlogPrintf": 0,
    "epicsPrintf": 0,
    "epicsStdoutPrintf": 0,
    "puts": 0,
    "errlogMessage": 0,
    "errlogSevPrintf": 1,
    "fprintf": 1,
    "errPrintf": 3,
}
TEXT_COPIES = frozenset({"strcpy", "strncpy", "epicsStrnCpy"})
# Functions that empty an array.
EMPTIERS = frozenset({"memset", "bzero"})
# Functions that tell the time, and the member of a time stamp that has its seconds.
CLOCKS = frozenset({"time", "epicsTimeGetCurrent"})
SECONDS = "secPastEpoch"
# Types of times: whole seconds here.
TIMES = frozenset({"time_t", "epicsTimeStamp", "TS_STAMP"})
# Functions that read a number from the front of a text.
PARSERS = frozenset({"atoi", "atol", "atof"})
# Functions that write a text by a format, with the place of the format.
TEXT_FORMATS = {"sprintf": 1, "snprintf": 2, "epicsSnprintf": 2, "strftime": 2, "epicsTimeToStrftime": 2}
# Those that write a time.
TIME_FORMATS = frozenset({"strftime", "epicsTimeToStrftime"})
# Functions that wait in the midst of a block, and of how many seconds the unit of their argument is.
SLEEPERS = {"epicsThreadSleep": Fraction(1), "sleep": Fraction(1), "usleep": Fraction(1, 10**6), "taskDelay": Fraction(1, 60)}
TEXT_COMPARISONS = frozenset({"strcmp", "strncmp", "strcasecmp", "epicsStrCaseCmp"})
MACRO_VALUES = frozenset({"macValueGet", "seqMacGet", "seqMacValGet"})
ABSOLUTES = frozenset({"fabs", "abs", "labs", "fabsf"})
# Functions that round to the nearest whole number.
ROUNDERS = frozenset({"rint", "round", "nint", "lround"})
# Questions about numbers of C that have one answer here.
NEVER = {"isnan": "FALSE", "isinf": "FALSE", "finite": "TRUE", "isfinite": "TRUE"}
# Constants that stand for no value, or for more than any.
HUGE = ("DBL_MAX", "FLT_MAX", "HUGE_VAL", "INFINITY", "HUGE")
# Functions of C whose result has no unit that anything tells.
TRANSCENDENTAL = frozenset("sqrt sin cos tan asin acos atan atan2 exp log log10 hypot".split())
