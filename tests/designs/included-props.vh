always @* a_low: assert (!q);
