module yomskafi.example/lineprotocol/v3

go 1.19
