SELECT`t`.`a``b`,`t`.`c`FROM`t`WHERE(`t`.`c`IN(?,?))
