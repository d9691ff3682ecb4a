/* A square grid whose sites are opened one after another, until a path of open ones leads from the top to the bottom. */
#ifndef GRID_H
#define GRID_H

#include "random.h"

/* How many sites were open then. Answers -1 where there is no memory. */
int sites_until_flow(int size, random_stream *chance);

#endif
