// Comments where the formatter drops them, and one that it keeps.
.import /* the path */ colours from "colours.asm" /* before its block */ {
.const shade = 2
}
.if shade /* before the brace */ {
nop
} else /* before the other brace */ {
rts // this one stays
}
.define place /* before the map */ {
name = "here"
}
sta $20, /* before the register: kept */ x
