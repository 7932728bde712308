/* The commands of `zrv`. Each takes its own name and the words after it, and gives the exit code. */
#ifndef COMMANDS_H
#define COMMANDS_H

int format_main(int argc, char **argv);
int write_main(int argc, char **argv);
int flush_main(int argc, char **argv);
int reset_main(int argc, char **argv);
int compact_main(int argc, char **argv);
int read_main(int argc, char **argv);
int peek_main(int argc, char **argv);
int report_main(int argc, char **argv);
int info_main(int argc, char **argv);
int cut_main(int argc, char **argv);
int pull_main(int argc, char **argv);
int assemble_main(int argc, char **argv);
int look_main(int argc, char **argv);
int mount_main(int argc, char **argv);
int grouped_main(int argc, char **argv);

#endif
