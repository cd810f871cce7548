"""The branches that a run has to meet, by name, in the order in which they are printed."""

from machine import NUMBERS

RECORDS = ("line 32", "line 256", "cache 4,096", "cache 1,048,576", "way equal to the line", "way equal to the cache", "live 1", "live 16")
FAULTS = ("line no power of two", "line below 32", "line above 256", "cache below 4,096", "cache above 1,048,576", "way no multiple of the line",
          "way below the line", "way above the cache", "live below 1", "live above 16")

GROUPS = {
    "rows that refuse": [f"row {row}" for row in (1, 2, 3, 4, 24, 5, 6)],
    "their order": [*(f"{row} before 24" for row in (1, 2, 3, 4)), *(f"24 before {row}" for row in (5, 6)), "24 at a zero extent"],
    "byte strides": ["a span that row 7 refused", "a byte stride of two words", "a byte stride of two words, fitted", "a byte stride of two words, declined"],
    "why a record is refused": [f"{fault}, and nothing else" for fault in FAULTS],
    "records at a bound": RECORDS,
    "kept whole": ["rank 0", "total at most 1,024", "region fits", "region just fits", "all grow"],
    "cutting": ["a region beyond 64 bits", "first axis kept", "tail empty", "tail fits", "tail just fits", "tail to 1",
                "least byte stride is the cache", "halved", "halved from just twice the cache", "1 taken off", "1 taken off, in a jump",
                "an axis that nobody moves along", "nothing shortened"],
    "declining": ["axis 0 is cut", "width no multiple of the line", "a stride no multiple of the line", "a stride below the span",
                  "an operand of size 0 passes", "declined"],
    "not fitted": ["not fitted: a fold", "not fitted: none chosen", "not fitted: not two operands"],
    "what counts for the fit": ["size 0 does not count", "no byte stride below the line", "axis 0 is below the line", "an operand counts, with axes",
                                "an operand counts, with none", "both operands count"],
    "fitting": ["load below the live lines", "load just the live lines", "an axis enters no product", "a block is 1", "a chosen stride is 0",
                "set 1 and go on", "set the greatest and end", "load stays above the live lines", "fit shortens",
                "fit shortens what cutting left whole"],
    "not the plan of the fixed four, by one number alone": [f"by the {name}" for name in NUMBERS],
}
