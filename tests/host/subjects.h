/* What the host test tries, by subject; each in a file of its own. */
#ifndef SUBJECTS_H
#define SUBJECTS_H

void test_reading(void);
void test_writing(void);
void test_verdicts(void);
void test_large(void);
void test_sessions(void);
void test_texts(void);
void test_slices(void);

/* Slices up to 2^power bytes, if the machine can map them; 2^32 and a few it must. */
void test_huge(int power);

#endif
