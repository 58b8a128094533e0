// Adds up what each customer has ordered. A scatter would keep one order of those that come at once; here the orders of one customer are a
// round, so that a sum across its lanes takes them all.
uniform int total[4];
uniform int rounds = 0;

void add(uniform int customer, int price) {
    total[customer] += reduce_add(price);
    rounds++;
}

export void go(uniform int count, uniform int customers[], uniform int prices[]) {
    foreach (i = 0 ... count) {
        int price = prices[i];
        foreach_unique (customer in customers[i]) {
            if (price < 0) {
                // A credit note is looked at by hand.
                foreach_active (lane)
                    assert(customers[i] != 3);
                continue;
            }
            add(customer, price);
        }
    }
}
