/* Makes a call on an index beside forbidden pages and compares everything that it left. */
#ifndef INDEX_CHECK_H
#define INDEX_CHECK_H

#include "index_model.h"

/* The call, with both placements of its buffers and numbers, must leave what o says. */
void check_index(const struct index_call *c, const struct index_outcome *o);

/* The same against the model.  Its outcome is left in o, with the bytes of the index until the next such check. */
void check_index_model(const struct index_call *c, struct index_outcome *o);

/* Prints a call on an index. */
void show_index_call(const void *call);

#endif
