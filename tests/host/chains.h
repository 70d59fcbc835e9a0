/* A text read, the table built, records judged, each call with what the one before it left. */
#ifndef CHAINS_H
#define CHAINS_H

void chain_random(void);

#endif
