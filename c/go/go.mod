module reedsolomon

go 1.19
