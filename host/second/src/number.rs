//! The numbers that are answered: 0 is success, then those of document 01's table in its order.

counted! {
    SUCCESS
    SHORT MAGIC WIDE BOUNDS
    CHAIN KEY UNFINISHED
    HEAD FREE INFO DIRECTORY KEYS ENTRY TWICE
    NAME FIELD ROOM DATE
    PACKED NOT_INFO COUNT TAG REFERENCED ROWS
}

// Those of document 02's requests 10 and 07.
counted! { 27; SALVAGE MISSING ORDER CHECK TAIL }
