/* The simulated radio. */
#include <string.h>

#include "host.h"

/* A number below `bound`, by splitmix64. */
static unsigned below(struct radio *radio, unsigned bound)
{
    uint64_t z = radio->random += 0x9e3779b97f4a7c15u;

    z = (z ^ (z >> 30)) * 0xbf58476d1ce4e5b9u;
    z = (z ^ (z >> 27)) * 0x94d049bb133111ebu;
    return (unsigned)((z ^ (z >> 31)) % bound);
}

/* Of ten packets on the way to a listener two are lost and two come twice. What finds no room in the air is lost too. */
static void send_to(struct radio *radio, struct air *air, const struct packet *packet)
{
    unsigned chance = below(radio, 10), copies = chance < 2 ? 0 : chance < 4 ? 2 : 1;

    if (radio->is_door_closed)
        copies = 0;
    radio->lost += copies == 0;
    radio->repeated += copies == 2;
    for (; copies > 0 && air->number < PACKETS_ON_AIR; copies--)
        air->packets[air->number++] = *packet;
}

void radio_send(struct radio *radio, enum station from, const uint8_t *bytes, size_t size)
{
    struct packet packet = {from, size, {0}};
    int to;

    if (size > sizeof packet.bytes)
        return;
    memcpy(packet.bytes, bytes, size);
    for (to = 0; to < LISTENERS; to++)
        if (to != (int)from)
            send_to(radio, &radio->air[to], &packet);
}

/* Takes any packet that is on its way to a listener; 0 where none is, and now and then too where the rest is late. */
int radio_receive(struct radio *radio, enum station to, struct packet *packet)
{
    struct air *air = &radio->air[to];
    size_t place;

    if (air->number == 0 || below(radio, 4) == 0)
        return 0;
    place = below(radio, (unsigned)air->number);
    *packet = air->packets[place];
    air->packets[place] = air->packets[--air->number];
    return 1;
}
