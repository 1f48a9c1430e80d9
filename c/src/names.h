/* The names of the variables that begin with GASNET_. */
#ifndef GASNETL_NAMES_H
#define GASNETL_NAMES_H

#include <stdio.h>

/* Warns by one line of the variables of the environment that begin with GASNET_ and aren't this project's: a name
 * that is mistyped has no effect. */
void gasnetl_warn_of_names(void);

/* Prints a line for each variable that the library and its commands read: its value, its default, and what it is. */
void gasnetl_names_print(FILE *to);

#endif
