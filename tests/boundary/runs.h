/* The runs: calls on purpose and by chance in turn, until their number is reached. */
#ifndef RUNS_H
#define RUNS_H

/* Makes calls until tally.most_calls are made; the run that reaches them is made to its end. */
void runs(void);

#endif
