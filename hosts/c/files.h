/* Memory for bytes, and files that are read and written as a whole. */
#ifndef FILES_H
#define FILES_H

#include "numbers.h"

/* Takes so many bytes; gives 0 if there is no memory for them. */
int take(struct bytes *bytes, size_t length);

/* Reads a whole file; gives 0 if that fails. What was taken for it is to be given
 * back in either case. */
int read_file(const char *path, struct bytes *content);

/* Writes a whole file; gives 0 if any of it may not have arrived. */
int write_file(const char *path, struct bytes content);

/* Whether all that was printed has arrived; a full disk shows here at the latest. */
int all_printed(void);

#endif
