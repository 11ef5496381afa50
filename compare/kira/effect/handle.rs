// The `handle` of every effect: there is nothing to hold.
