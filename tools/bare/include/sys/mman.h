#include "../../libc.h"
