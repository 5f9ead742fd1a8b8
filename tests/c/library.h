/* The call of the library for a call of the model. */
#ifndef LIBRARY_H
#define LIBRARY_H

#include "model.h"

struct answer library_answer(const struct call *call, const struct operands *o);

#endif
