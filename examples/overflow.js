"use strict";
print("the greatest number of the profile");
print(9007199254740991);
print(9007199254740991 + 1);
print("this line is not reached");
