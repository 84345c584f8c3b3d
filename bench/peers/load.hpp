/* How busy the machine is while this program measures. */
#pragma once

class Load {
public:
    /* Prints how many processors there are, and the load average. */
    Load();

    /* Prints the load average again, and the share of the processors that other programs took meanwhile. */
    void print_end() const;

private:
    double begun, busy_before, own_before; /* seconds */
};
