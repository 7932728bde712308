/* `zrv explore`: calls are sent, power goes at any moment, a drive may not come back. What is shown? argv[0] is the word "explore". */
#ifndef EXPLORE_H
#define EXPLORE_H

int explore_main(int argc, char **argv);

#endif
