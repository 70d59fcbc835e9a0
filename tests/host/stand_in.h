#ifndef STAND_IN_H
#define STAND_IN_H

/* What the harness says it runs on; only stand_in.c has it, so a harness for the stand-in cannot be linked with the archive. */
extern const char stand_in[];

#endif
