C no statement at all
