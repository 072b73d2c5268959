module bech32proved

go 1.19
