/* A host in C: ends with 0 where the library that it was linked with gives the answers of 01 and 02. */
#include "answers.h"

int main(void) { return wrong_answers() == 0 ? 0 : 1; }
