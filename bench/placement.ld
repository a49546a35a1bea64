/* All code of a side in one section, after its padding, so that every function moves by it. */
SECTIONS { .text : { *(.text.padding) *(.text .text.*) } }
