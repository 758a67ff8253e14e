/* A controller of 128 kilobytes of flash and 16 of memory, which the emulated boards have at these addresses. */
MEMORY
{
    flash (rx) : ORIGIN = 0x00000000, LENGTH = 128K
    ram (rwx) : ORIGIN = 0x20000000, LENGTH = 16K
}
ENTRY(reset)
INCLUDE sections.ld
