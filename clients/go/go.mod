module reqkey

go 1.19
