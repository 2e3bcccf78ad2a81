/* One copy of the entries: each begins PAD bytes after a multiple of 64, and so does the first function behind them. */
SECTIONS
{
    .text.placed :
    {
        . = ALIGN(64);       *entry.o(.text .text.*)
        . = ALIGN(64) + PAD; *(.text.utf8b_decode)
        . = ALIGN(64) + PAD; *(.text.utf8b_encode)
        . = ALIGN(64) + PAD; *(.text.utf8b_cesu8_decode)
        . = ALIGN(64) + PAD; *(.text.utf8b_cesu8_encode)
        . = ALIGN(64) + PAD; *(.text .text.*)
    }
}
