kafka-acls --add --allow-principal User:a --operation Read --operation CreateTokens --operation describe_tokens --topic orders
kafka-acls --add --deny-principal User:b --deny-principal Group:g --operation TwoPhaseCommit --transactional-id pay
kafka-acls --add --allow-principal User:c --operation DescribeTokens --user-principal User:d
User:q h acl --add --allow-principal User:d --operation TwoPhaseCommit --operation Write --transactional-id pay
