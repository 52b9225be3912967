"use strict";
print("bolts, nuts, washers");
print(12 * 7 + 40 * 3 + 100);
print("change from 500");
print(500 - 12 * 7 - 40 * 3 - 100);
