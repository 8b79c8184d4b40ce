/* The edits that make the second image of a part's input. Each is 6 bytes: its kind, a value,
 * and two numbers, A and B, that choose among what there is to be edited. "Free" is a
 * directory that is no uncovered one of the part, "outside" a node that is none of the part's
 * at all. */
#ifndef EDITS_H
#define EDITS_H

#define EDIT_LEN 6
/* No more than this many are made. */
#define EDITS 32

/* Added to a kind: the edit is not taken back if the table check refuses what it makes. */
#define EDIT_KEPT 128

enum {
    EDIT_BYTE,        /* byte A of the image is the value */
    EDIT_NUMBER,      /* the 2 bytes from byte 2 * A on are B */
    EDIT_TARGET,      /* a magic link, inside or not, has another target */
    EDIT_NAME,        /* an entry of a free directory has another name */
    EDIT_LEAD,        /* it leads to another node */
    EDIT_BODY,        /* a link outside has another body */
    EDIT_KIND,        /* a node outside that is no directory is another such */
    EDIT_MOUNT,       /* a mount on nothing of the part has another root, parent or point */
    EDIT_ROOT,        /* mount 0's root is another, above the handle if that is in mount 0 */
    EDIT_HANDLE_ROOT, /* the same of the handle's mount */
    EDIT_PARENT,      /* the handle's node, a mount's root or any directory has another parent */
    EDIT_ADD_ENTRY,   /* a free directory has one entry more */
    EDIT_DROP_ENTRY,  /* or less */
    EDIT_ADD_NODE,    /* there is one node more */
    EDIT_DROP_NODE,   /* or less */
    EDIT_ADD_MOUNT,   /* there is one mount more, on nothing of the part */
    EDIT_DROP_MOUNT,  /* or less */
    EDIT_SHIFT,       /* all names and bodies lie further behind in the text */
    EDIT_MOVE,        /* one of them, inside or not, lies at the text's end */
    EDIT_KINDS
};

#endif
