module lspjudge

go 1.19
