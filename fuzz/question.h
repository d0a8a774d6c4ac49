/* How an input of the fuzzer is laid out: the first octets ask, and the rest is the file. */
#ifndef QUESTION_H
#define QUESTION_H

/* k and start have an octet each, the lengths of decode's two runs two, of which the first counts most. Then come the length of describe's run, n, and the
 * lengths of place's run, of sheet's and of point's, in an octet each, and that of picture's run in two. */
enum { QUESTION_OCTETS = 13, LONGEST_RUN = 2047, MOST_NUMBERS = 63, MOST_OF_PLACE = 7, MOST_OF_VALUE = 3 };

#endif
