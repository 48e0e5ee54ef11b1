/* All of libzendurai.a: the controllers of signals, points and detectors, the interlocking, and the codecs. docs/EMBEDDED.md has how to
   build it. */
#ifndef ZENDURAI_H
#define ZENDURAI_H

#include "zendurai_codecs.h"
#include "zendurai_controllers.h"
#include "zendurai_interlocking.h"

#endif
