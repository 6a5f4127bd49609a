/* The module of mailbox.c that accepts the mailbox, and reads there. It can't have the sender's
   identity in its own pages, since the sender's text has this module's. So it asks whose page it
   reads, and tells that with what it read. */

#include "secure.h"

/* Of mailbox.ld: the mailbox, at this module's own virtual page. */
extern const volatile char received_mailbox[];

enum { NOBODY = -1 };

/* How long the message is, or NOBODY; and word 0 of the identity of the module behind it. C returns
   these two in a0 and a1. */
struct answer {
    long length;
    unsigned long sender;
};

struct answer receive(void)
{
    unsigned long sender = offerer_id((const void *)received_mailbox);
    struct answer answer = { NOBODY, 0 };
    if (sender == 0)
        return answer;
    answer.sender = identity_word(sender, 0);
    answer.length = 0;
    while (received_mailbox[answer.length] != 0)
        answer.length++;
    return answer;
}

/* Reads without asking. */
unsigned long peek(void)
{
    return received_mailbox[0];
}
