/* A controller of 128 kilobytes of flash and 16 of memory; the emulated board has memory at both addresses. */
MEMORY
{
    flash (rx) : ORIGIN = 0x80000000, LENGTH = 128K
    ram (rwx) : ORIGIN = 0x80020000, LENGTH = 16K
}
ENTRY(start)
INCLUDE sections.ld
