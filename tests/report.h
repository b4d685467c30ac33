/* What is counted: each check once, by name. */
#ifndef REPORT_H
#define REPORT_H

void check(int right, const char *name);

/* Prints 'N passed, M failed'. 0 where all passed. */
int report(void);

#endif
