"""weft: the companion of Timeweave that people type every day.

Each verdict on a file is the proved library's or the proved program's, or, where asked for, the Python reference's. What weft decides by itself (whose
a line is, what is kept, told or gone) stands in weft/deciding, a rule a function; it asks a person where none of these rules can tell. All else here
is sentences, files that are whole at each moment, and the lines that somebody kept, each with how it came."""

__version__ = "1.0.0"
