// The header a second time in the program of host.cpp: its inline functions clash with nothing.
#include <pasoletu.h>

const char *version_in_second();

const char *version_in_second()
{
    return pasoletu_version();
}
