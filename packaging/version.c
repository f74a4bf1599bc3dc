/* Texts about the library: constants, beside its proved functions. */
#include "hardieflax.h"

const char *hardieflax_version(void) { return HARDIEFLAX_VERSION; }

const char *hardieflax_kit(void) { return HARDIEFLAX_KIT; }

const char *hardieflax_status_name(uint32_t status) {
    switch (status) {
    case HARDIEFLAX_DONE:
        return "Done";
    case HARDIEFLAX_USAGE:
        return "Usage";
    case HARDIEFLAX_BAD_DOCUMENT:
        return "BadDocument";
    case HARDIEFLAX_NO_MEMORY:
        return "NoMemory";
    case HARDIEFLAX_TOO_LARGE:
        return "TooLarge";
    default:
        return "Unknown";
    }
}
