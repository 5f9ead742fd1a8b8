/* Gives one call to the library and to the model, and compares all that can be seen. */
#ifndef COMPARE_H
#define COMPARE_H

#include "model.h"
#include "place.h"

/* 1 where the answer, every buffer and all that lies around them are what the model says; else prints what differs. */
int agrees(const struct call *call, const struct operands *o, enum placement placement, int null);

/* 1 where the call is refused by the number though no slice of it may be read: sizes are judged before words. */
int refuses_unread(const struct call *call, const struct operands *o, uint32_t number);

/* From here on a crash, or a run of more than so many seconds, prints the operands of the call at hand and ends the program. */
void watch_calls(unsigned seconds);

#endif
