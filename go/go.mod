module hizorafy.example/itv

go 1.19
