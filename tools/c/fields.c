/* Members that are narrower than a byte. */
struct packet {
    unsigned kind : 3;
    unsigned size : 20;
    int change : 9;
};

int change_of(const struct packet *packet) {
    return packet->kind == 5 ? packet->change : (int)packet->size;
}

void resize(struct packet *packet, unsigned size) {
    packet->size = size;
}
