kafka-acls --add --allow-principal User:p --producer --topic t --transactional-id tx-1 --transactional-id tx-2
