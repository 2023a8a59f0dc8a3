/* The examples of 01 and 02 through the calls of vornulica.h, in C. */
#ifndef ANSWERS_H
#define ANSWERS_H

/* How many answers are not those that the papers give. */
int wrong_answers(void);

#endif
