// MySQL's queries. None is built here.

pub struct MysqlQueryBuilder;

impl crate::query_builder::QueryBuilder<crate::mysql::Mysql> for MysqlQueryBuilder {}
