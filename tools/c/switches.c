/* Switches: dense, sparse, falling through, in a loop. */
int days(int month) {
    switch (month) {
    case 2:
        return 28;
    case 4:
    case 6:
    case 9:
    case 11:
        return 30;
    default:
        return 31;
    }
}

extern void told(long value);

void sparse(long value) {
    switch (value) {
    case -5000000000:
        told(1);
        break;
    case 0:
        told(2);
        /* falls through */
    case 17:
        told(3);
        break;
    case 1000000:
        told(value);
    }
}

int run(const unsigned char *code, int *stack) {
    int top = 0;
    for (;;) {
        switch (*code++) {
        case 0:
            return top ? stack[top - 1] : 0;
        case 1:
            stack[top++] = *code++;
            break;
        case 2:
            top--;
            stack[top - 1] += stack[top];
            break;
        case 3:
            top--;
            stack[top - 1] *= stack[top];
            break;
        case 200:
            stack[top - 1] = -stack[top - 1];
            break;
        default:
            return -1;
        }
    }
}

char letter(unsigned char value) {
    switch (value & 7) {
    case 0: return 'z';
    case 1: return 'q';
    case 2: return 'm';
    case 5: return 'x';
    case 7: return 'a';
    }
    return '?';
}
